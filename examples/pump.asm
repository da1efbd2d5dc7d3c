; pump: the smallest program with a subroutine and an NMI service.
; It is the program P11 of the scope paper, and the example of README.
; Wired: NMI. It uses 2 levels: one for the CALL, one for NMI, which can come
; while the subroutine runs.

        .org    0880h

start:  reti                    ; ends start-up: mode normal, NMI can be taken
main:   call    stroke          ; one level
        jp      main

        .org    0890h

stroke: ret                     ; the pump's stroke would stand here

; The vectors.

        .org    0FFCh
        reti                    ; NMI: nothing to do

        .org    0FFEh
        jp      start           ; reset

        .end
