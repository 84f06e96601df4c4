; An error code behind the first 64 bytes of the body: for layout 2.
;
; Calls of JSON-RPC are answered with status 200, and an error stands in the body alone: here behind the
; version and an id of 36 characters, as {"jsonrpc": "2.0", "id": "..", "error": {"code": -32603. It is a
; failure, but for the codes -32600 to -32602, which blame the caller and are ignored. A status from 500 on
; is a failure too, and an outcome that is no response.

ldxw r2, [r1+0]                 ; the kind
jne r2, 0, +17                  ; no response: a failure
ldxw r2, [r1+4]                 ; the status
jge r2, 500, +15                ; a server error: a failure
ldxdw r2, [r1+128]              ; the body's bytes 64 to 71, the first one lowest
lddw r3, 0x22726f7272652220     ;  "error"
jne r2, r3, +9                  ; no error: a success
ldxdw r2, [r1+144]              ; the body's bytes 80 to 87
lddw r3, 0x303632332d203a22     ; ": -3260
jne r2, r3, +7                  ; another code: a failure
ldxb r2, [r1+152]               ; the code's last digit
sub r2, 48                      ; less the digit 0
jgt r2, 2, +4                   ; no digit from 0 to 2: a failure

mov r0, 2                       ; ignored
exit
mov r0, 0                       ; success
exit
mov r0, 1                       ; failure
exit
