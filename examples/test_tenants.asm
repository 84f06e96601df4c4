; A tenant's tag.
;
; The application gives each call the tag of its tenant. Calls of tenants whose tag begins with "test-"
; are ignored, and the others are judged by their status.

mov r6, r1                  ; the record: a call unsets R1 to R5
stw [r10-8], 0x74736574     ; "test", its first byte lowest
stb [r10-4], 45             ; "-"
mov r1, r10
add r1, -8
mov r2, 5
call 4                      ; tag_starts
jne r0, 0, +8               ; a test: ignored
ldxw r2, [r6+0]             ; the kind
jne r2, 0, +4               ; no response: a failure
ldxw r2, [r6+4]             ; the status
jge r2, 500, +2             ; a server error: a failure

mov r0, 0                   ; success
exit
mov r0, 1                   ; failure
exit
mov r0, 2                   ; ignored
exit
