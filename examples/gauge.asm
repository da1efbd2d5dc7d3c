; gauge: the width of a shoe from the count of the gauge's slide.
;
;   in   0C0h        the slide's count, one byte (port A)
;   out  084h, 085h  the width in tenths of a millimetre, high byte first
;
; A tooth of the slide is 0.3 mm and the closed slide stands at 90.0 mm. The
; rack is not quite even, so a table has a correction for every four teeth:
;
;   width = 900 + 3 x count + table[count / 4]
;
; Nothing is wired: no source is enabled, and the pin of NMI is tied.
; It uses 1 level.

x       .def    080h            ; points into the ROM window
w       .def    083h            ; loop counter
widthh  .def    084h
widthl  .def    085h
slide   .def    0C0h            ; port A, data
ior     .def    0C8h            ; interrupt option, write-only
drwr    .def    0C9h            ; page of the ROM window, write-only
a       .def    0FFh

page    .equ    24h             ; the table's page: 900h / 40h
window  .equ    40h             ; where the page shows in data space

        .org    0880h

start:  ldi     ior,00h         ; sources 1 to 4 disabled
        ldi     drwr,page       ; the window shows 900h to 93Fh
        reti                    ; ends start-up

; Three times the count, on top of the closed slide's width.

main:   ldi     widthh,03h      ; 900 = 0384h
        ldi     widthl,84h
        ldi     w,3
teeth:  ld      a,slide
        call    addup
        dec     w
        jrnz    teeth

; The correction of the count's four teeth.

        ld      a,slide
        call    fourth
        addi    a,window
        ld      x,a
        ld      a,(x)           ; a byte of the table, through the window
        call    addup

sleep:  stop
        jp      main            ; awake: measure anew

; Adds A to the width.

addup:  add     a,widthl
        ld      widthl,a
        jrnc    added
        inc     widthh
added:  ret

; A by four. There is no shift to the right, but seven rotations to the left
; through C, a ring of nine bits, are two to the right. What came round is
; masked.

fourth: rlc     a
        rlc     a
        rlc     a
        rlc     a
        rlc     a
        rlc     a
        rlc     a
        andi    a,3Fh
        ret

; The corrections in tenths of a millimetre, one for every four teeth.

        .org    0900h

table:  .byte   0,0,0,1,1,1,1,2,2,2,3,3,3,4,4,4
        .byte   4,5,5,5,5,6,6,6,6,6,7,7,7,7,7,7
        .byte   7,7,7,7,7,7,7,6,6,6,6,6,5,5,5,5
        .byte   4,4,4,4,3,3,3,2,2,2,1,1,1,1,0,0

; The vectors.

        .org    0FFEh
        jp      start           ; reset

        .end
