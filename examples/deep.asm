; deep: a counter with a serial display that is one level too deep.
;
; A light barrier on port A asks by source 1 at each piece, and the main code
; sends the count to a shift register. NMI comes when the supply fails.
;
; Levels at most, by what is wired:
;
;   nmi,1   main code 4, service of source 1 needs 1, NMI 0:
;           4 + (1 + 1) + (1 + 0) = 7: REFUSED, there are six
;   1       4 + (1 + 1)           = 6: accepted
;   nmi     4 + (1 + 0)           = 5: accepted
;   none    4                        : accepted
;
; The seventh push happens when source 1 interrupts the innermost `hold`, and
; NMI then its own `settle`. To mend the program, write out one of the
; subroutines where it is called: `settle`, say, in `piece`.

total   .def    084h            ; pieces
shift   .def    085h            ; what is still to be sent
bits    .def    086h            ; bits still to be sent
time    .def    087h            ; of a clock pulse
quiet   .def    088h            ; of the light barrier
keepa   .def    089h            ; A of what was interrupted
failed  .def    08Ah            ; bit 0: the supply failed
porta   .def    0C0h            ; bit 0: the light barrier
portb   .def    0C1h            ; bit 0: data, bit 1: clock, bit 2: strobe
ior     .def    0C8h            ; interrupt option, write-only
a       .def    0FFh

        .org    0880h

start:  ldi     total,00h
        ldi     failed,00h
        ldi     ior,10h         ; enables sources 1 to 4, whole: it reads 00h
        reti                    ; ends start-up

main:   jrs     0,failed,halt
        ld      a,total
        call    show            ; level 1
        jp      main

halt:   stop                    ; the supply failed: sleep
        jp      halt

; Shows A: eight bits, then the strobe.

show:   ld      shift,a
        ldi     bits,8
each:   call    send            ; level 2
        dec     bits
        jrnz    each
        set     2,portb
        res     2,portb
        ret

; Sends the highest bit of what is left.

send:   ld      a,shift
        rlc     a
        ld      shift,a
        res     0,portb
        jrnc    sent
        set     0,portb
sent:   call    pulse           ; level 3
        ret

; One pulse of the clock.

pulse:  set     1,portb
        call    hold            ; level 4
        res     1,portb
        ret

; Holds the clock for a moment.

hold:   ldi     time,3
held:   dec     time
        jrnz    held
        ret

; Source 1: a piece in the light barrier. It is counted if the barrier is
; still dark after a while.

piece:  ld      keepa,a
        call    settle          ; level 1 of the service
        jrs     0,porta,bright
        inc     total
bright: ld      a,keepa
        reti

; Waits until the barrier no longer flickers.

settle: ldi     quiet,5
flick:  dec     quiet
        jrnz    flick
        ret

; NMI: the supply fails.

supply: set     0,failed
        reti

; The vectors.

        .org    0FF6h
        jp      piece           ; source 1, port A

        .org    0FFCh
        jp      supply          ; NMI

        .org    0FFEh
        jp      start           ; reset

        .end
