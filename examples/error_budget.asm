; An error budget.
;
; The application gives two facts with each outcome: fact 0 is how many errors it has seen today, and
; fact 1 how many it puts up with. A bad outcome within the budget is ignored; from there on it is a
; failure.

ldxw r2, [r1+0]     ; the kind
jne r2, 0, +4       ; no response: bad
ldxw r2, [r1+4]     ; the status
jge r2, 500, +2     ; a server error: bad
mov r0, 0           ; success
exit

mov r1, 0
call 1              ; fact
mov r6, r0          ; the errors: R6 to R9 survive a call
mov r1, 1
call 1              ; fact: the budget
jlt r6, r0, +2      ; within it: ignored
mov r0, 1           ; failure
exit
mov r0, 2           ; ignored
exit
