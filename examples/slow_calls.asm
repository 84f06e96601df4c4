; Slow calls.
;
; A call that reads, by GET or HEAD, is a failure where it took more than 500 milliseconds, and another
; one where it took more than 2,000. So is an outcome that is no response.

ldxw r2, [r1+0]     ; the kind
jne r2, 0, +9       ; no response: a failure
ldxw r2, [r1+36]    ; the method
ldxdw r3, [r1+8]    ; the duration in milliseconds
jeq r2, 1, +3       ; GET
jeq r2, 2, +2       ; HEAD
jgt r3, 2000, +4    ; another method, and slow: a failure
ja +1
jgt r3, 500, +2     ; a slow read: a failure

mov r0, 0           ; success
exit
mov r0, 1           ; failure
exit
