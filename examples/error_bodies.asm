; A look at the body's front.
;
; Some services answer an error with status 200 and say so in the body alone. A response whose body
; begins with {"error" is a failure, whatever its status; so is one with a status from 500 on, and an
; outcome that is no response.

ldxw r2, [r1+0]                 ; the kind
jne r2, 0, +8                   ; no response: a failure
ldxw r2, [r1+4]                 ; the status
jge r2, 500, +6                 ; a server error: a failure
ldxdw r2, [r1+64]               ; the body's first eight bytes, the first one lowest
lddw r3, 0x22726f727265227b     ; {"error"
jeq r2, r3, +2                  ; a failure

mov r0, 0                       ; success
exit
mov r0, 1                       ; failure
exit
