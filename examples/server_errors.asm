; Server errors and timeouts.
;
; A response with a status from 500 on is a failure, and so is a call that ran into a timeout or was
; refused or reset. An error on the caller's own side says nothing of the service: it is ignored.

ldxw r2, [r1+0]     ; the kind
jeq r2, 4, +7       ; an error: ignored
jne r2, 0, +4       ; a timeout, refused or reset: a failure
ldxw r2, [r1+4]     ; the status of the response
jge r2, 500, +2     ; a server error: a failure

mov r0, 0           ; success
exit
mov r0, 1           ; failure
exit
mov r0, 2           ; ignored
exit
