; pages: a shoe's size from the class of its width, by a chart in each of two
; pages.
;
;   in   0C0h        the class, 0 to 63 (port A)
;   in   0C1h        bit 0: the chart, 0 for children, 1 for adults (port B)
;   out  084h        the size
;
; The image has 6K: page 0, page 1, and the fixed half. The byte at 0CAh picks
; the page that stands at 000h to 7FFh; reset clears it. A chart stands at 3C0h
; in each page, and so does, at 000h, the subroutine that looks a class up:
; adults' sizes are 18 above what their chart has. Both have their instructions
; at the same addresses, since a mark stands for its address with every page.
;
; Code that changes the page must stand in the fixed half. Nothing is wired: no
; source is enabled, and the pin of NMI is tied. It uses 1 level.

x       .def    080h            ; points into the ROM window
size    .def    084h
class   .def    0C0h            ; port A, data
chart   .def    0C1h            ; port B, data
ior     .def    0C8h            ; interrupt option, write-only
drwr    .def    0C9h            ; page of the ROM window, write-only
bank    .def    0CAh            ; page of the ROM
a       .def    0FFh

shows   .equ    0Fh             ; the window's page: 3C0h / 40h
window  .equ    40h             ; where it shows in data space

; Page 0: children.

        .org    0000h

look0:  ld      a,(x)           ; a byte of the chart, through the window
        addi    a,0
        ret

        .org    03C0h

        .byte   16,16,16,16,17,17,17,18,18,18,18,19,19,19,20,20
        .byte   20,20,21,21,21,22,22,22,22,23,23,23,24,24,24,24
        .byte   25,25,25,26,26,26,26,27,27,27,28,28,28,28,29,29
        .byte   29,30,30,30,30,31,31,31,32,32,32,32,33,33,33,34

; Page 1: adults.

        .org    0000h

look1:  ld      a,(x)
        addi    a,18
        ret

        .org    03C0h

        .byte   16,16,16,16,16,17,17,17,17,18,18,18,18,19,19,19
        .byte   19,20,20,20,20,21,21,21,21,21,22,22,22,22,23,23
        .byte   23,23,24,24,24,24,25,25,25,25,26,26,26,26,26,27
        .byte   27,27,27,28,28,28,28,29,29,29,29,30,30,30,30,31

; The fixed half.

look    .equ    0000h           ; in either page

        .org    0880h

start:  ldi     ior,00h         ; sources 1 to 4 disabled
        ldi     drwr,shows      ; the window shows 3C0h to 3FFh
        reti                    ; ends start-up

main:   ldi     bank,0          ; children
        jrr     0,chart,picked
        ldi     bank,1          ; adults
picked: ld      a,class
        andi    a,3Fh
        addi    a,window
        ld      x,a
        call    look            ; level 1
        ld      size,a

sleep:  stop
        jp      main            ; awake: look anew

; The vector.

        .org    0FFEh
        jp      start           ; reset

        .end
