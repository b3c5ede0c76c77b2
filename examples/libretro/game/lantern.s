; Lantern: a small game for the NES, made to be watched. Six coins end a level, the fourth level ends the game.
; Start begins and pauses, the pad moves, A runs faster while there is breath. docs/SETS.md tells how it is recorded.
;   ca65 lantern.s -o lantern.o && ld65 -C nrom.cfg lantern.o -o lantern.nes

; What a set looks at.
state       = $10               ; 0 title, 1 play, 2 pause, 3 level is done, 4 over, 5 won
level       = $11               ; 1 to 4
lives       = $12
coins       = $13               ; of this level
score       = $14               ; six decimal digits in three bytes, the least first
frames      = $17               ; grows at every frame
random      = $18               ; two bytes
combo       = $1A               ; coins in a row, at most 9
combo_left  = $1B               ; frames until the combo is lost
seconds     = $1C               ; left in this level, two decimal digits
ticks       = $1D               ; frames of the present second
wait_left   = $1E               ; frames of the state "level is done"
hero        = $20               ; the address of the player's object: another one in each level
pad         = $22
pad_before  = $23
pad_new     = $24
safe_left   = $25               ; frames in which no enemy hurts
total       = $26               ; all coins of this game, two bytes
best        = $28               ; the best score; a reset leaves it
deaths      = $2B
relics      = $2C               ; a bit for each level
mark        = $2D               ; 5A A5 once the best score stands

; Objects of 16 bytes: kind, x, y, step, .., breath, phase. The player is one of the first four.
objects     = $0300
enemies     = $0340
coin        = $0380
relic       = $0390
kind        = 0                 ; 0 none, 1 player, 2 enemy, 3 coin, 4 relic
x_of        = 1
y_of        = 2
step_of     = 3
breath      = 5
phase       = 6

; What the program uses beside it.
ready       = $30
shown       = $31
left        = $32
other       = $34               ; an address
sprites     = $0200

PAD_START   = $10
PAD_UP      = $08
PAD_DOWN    = $04
PAD_LEFT    = $02
PAD_RIGHT   = $01
PAD_A       = $80

.segment "HEADER"
    .byte "NES", $1A, 1, 0, 1, 0, 0, 0, 0, 0, 0, 0, 0, 0

.segment "CODE"

; --- The machine ---

reset:
    sei
    cld
    ldx #$40
    stx $4017
    ldx #$FF
    txs
    inx
    stx $2000
    stx $2001
    stx $4010
:   bit $2002
    bpl :-
    lda mark
    cmp #$5A
    bne new_machine
    lda mark + 1
    cmp #$A5
    beq warm
new_machine:
    lda #0
    sta best
    sta best + 1
    sta best + 2
    lda #$5A
    sta mark
    lda #$A5
    sta mark + 1
warm:
    ldx #0
    lda #0
clear:
    sta $0300, x
    sta $0400, x
    sta $0500, x
    sta $0600, x
    sta $0700, x
    cpx #best
    bcc zero
    cpx #best + 3
    bcc keep
    cpx #mark
    bcc zero
    cpx #mark + 2
    bcc keep
zero:
    sta $00, x
keep:
    inx
    bne clear
    jsr hide
:   bit $2002
    bpl :-
    jsr draw
    lda #$A7
    sta random
    lda #$31
    sta random + 1
    lda #$80
    sta $2000
    lda #$18
    sta $2001
forever:
    lda ready
    beq forever
    lda #0
    sta ready
    jsr update
    jsr show
    jmp forever

nmi:
    pha
    txa
    pha
    inc frames
    lda #0
    sta $2003
    lda #>sprites
    sta $4014
    lda #0
    sta $2005
    sta $2005
    lda #1
    sta ready
    pla
    tax
    pla
irq:
    rti

; The palette, and a square for each kind of thing.
draw:
    lda #$3F
    sta $2006
    lda #$00
    sta $2006
    ldx #0
:   lda palette, x
    sta $2007
    inx
    cpx #32
    bne :-
    lda #$00
    sta $2006
    sta $2006
    ldx #0
:   lda tiles, x
    sta $2007
    inx
    cpx #tiles_end - tiles
    bne :-
    rts

hide:
    ldx #0
    lda #$F8
:   sta sprites, x
    inx
    bne :-
    rts

; --- A frame ---

update:
    jsr read_pad
    jsr draw_number
    ldx state
    lda states_high, x
    pha
    lda states_low, x
    pha
    rts

states_low:
    .byte <(title - 1), <(play - 1), <(paused - 1), <(done - 1), <(over - 1), <(over - 1)
states_high:
    .byte >(title - 1), >(play - 1), >(paused - 1), >(done - 1), >(over - 1), >(over - 1)

read_pad:
    lda pad
    sta pad_before
    lda #1
    sta $4016
    lda #0
    sta $4016
    ldx #8
:   lda $4016
    lsr a
    rol pad
    dex
    bne :-
    lda pad_before
    eor #$FF
    and pad
    sta pad_new
    rts

draw_number:
    lsr random + 1
    ror random
    bcc :+
    lda random + 1
    eor #$B4
    sta random + 1
:   rts

title:
    lda pad_new
    and #PAD_START
    beq :+
    lda #0
    sta score
    sta score + 1
    sta score + 2
    sta total
    sta total + 1
    sta deaths
    sta relics
    lda #3
    sta lives
    lda #1
    sta level
    jsr begin_level
:   rts

paused:
    lda pad_new
    and #PAD_START
    beq :+
    lda #1
    sta state
:   rts

over:
    lda pad_new
    and #PAD_START
    beq :+
    lda #0
    sta state
    sta level
:   rts

; The level is done: each fourth frame a second that is left becomes ten points.
done:
    dec wait_left
    beq next_level
    lda wait_left
    and #3
    bne :+
    lda seconds
    beq :+
    jsr one_second_less
    ldy #1
    jsr add_tens
:   rts
next_level:
    inc level
    lda level
    cmp #5
    bne begin_level
    lda #4
    sta level
    lda #5
    jmp end_game

begin_level:
    ldx #0
    lda #0
:   sta objects, x
    inx
    cpx #$A0
    bne :-
    sta coins
    sta combo
    sta combo_left
    sta hero
    lda #>objects
    sta hero + 1
    lda level
    sec
    sbc #1
    asl a
    asl a
    asl a
    asl a
    sta hero
    ldy #kind
    lda #1
    sta (hero), y
    ldy #x_of
    lda #120
    sta (hero), y
    ldy #y_of
    lda #104
    sta (hero), y
    ldy #breath
    lda #32
    sta (hero), y
    lda #$30
    sta seconds
    lda #60
    sta ticks
    sta safe_left
    ldx #0
    ldy level
:   lda #2
    sta enemies + kind, x
    lda begin_x, y
    sta enemies + x_of, x
    lda begin_y, y
    sta enemies + y_of, x
    lda begin_step, y
    sta enemies + step_of, x
    txa
    clc
    adc #16
    tax
    dey
    bne :-
    jsr place_coin
    jsr place_relic
    lda #1
    sta state
    rts

place_coin:
    jsr some_x
    sta coin + x_of
    jsr some_y
    sta coin + y_of
    lda #3
    sta coin + kind
    rts

place_relic:
    jsr some_x
    sta relic + x_of
    jsr some_y
    sta relic + y_of
    lda #4
    sta relic + kind
    rts

some_x:
    jsr draw_number
    lda random + 1
    and #$3F
    sta left
    lda random
    and #$7F
    clc
    adc left
    adc #24
    rts

some_y:
    jsr draw_number
    lda random + 1
    and #$1F
    sta left
    lda random
    and #$7F
    clc
    adc left
    adc #32
    rts

; --- Play ---

play:
    lda pad_new
    and #PAD_START
    beq :+
    lda #2
    sta state
    rts
:   jsr move_hero
    jsr move_enemies
    jsr run_timers
    lda state
    cmp #1
    bne :+
    jsr touch_coin
    jsr touch_relic
    jsr touch_enemies
:   rts

; One point a frame, or two while A is held and there is breath.
move_hero:
    ldy #phase
    lda (hero), y
    clc
    adc #1
    sta (hero), y
    lda #1
    sta left
    ldy #breath
    lda pad
    and #PAD_A
    beq rest
    lda (hero), y
    beq walk
    sec
    sbc #1
    sta (hero), y
    asl left
    bne walk
rest:
    lda frames
    and #3
    bne walk
    lda (hero), y
    cmp #32
    beq walk
    clc
    adc #1
    sta (hero), y
walk:
    ldy #x_of
    lda pad
    and #PAD_LEFT
    beq :+
    lda (hero), y
    cmp #16
    bcc :+
    sec
    sbc left
    sta (hero), y
:   lda pad
    and #PAD_RIGHT
    beq :+
    lda (hero), y
    cmp #232
    bcs :+
    clc
    adc left
    sta (hero), y
:   ldy #y_of
    lda pad
    and #PAD_UP
    beq :+
    lda (hero), y
    cmp #28
    bcc :+
    sec
    sbc left
    sta (hero), y
:   lda pad
    and #PAD_DOWN
    beq :+
    lda (hero), y
    cmp #208
    bcs :+
    clc
    adc left
    sta (hero), y
:   rts

move_enemies:
    ldx #$30
:   lda enemies + kind, x
    beq next_enemy
    inc enemies + phase, x
    lda enemies + x_of, x
    clc
    adc enemies + step_of, x
    sta enemies + x_of, x
    cmp #12
    bcc turn
    cmp #236
    bcc next_enemy
turn:
    lda #0
    sec
    sbc enemies + step_of, x
    sta enemies + step_of, x
next_enemy:
    txa
    sec
    sbc #16
    tax
    bpl :-
    rts

run_timers:
    lda safe_left
    beq :+
    dec safe_left
:   lda combo_left
    beq :+
    dec combo_left
    bne :+
    lda #0
    sta combo
:   dec ticks
    bne :+
    lda #60
    sta ticks
    lda seconds
    beq hurt
    jsr one_second_less
:   rts

one_second_less:
    lda seconds
    and #$0F
    bne :+
    lda seconds
    sec
    sbc #7
    sta seconds
    rts
:   dec seconds
    rts

hurt:
    inc deaths
    lda #0
    sta combo
    sta combo_left
    lda #90
    sta safe_left
    lda #$30
    sta seconds
    dec lives
    beq :+
    rts
:   lda #4

; The game ends in the state of A; the best score is kept.
end_game:
    sta state
    lda score + 2
    cmp best + 2
    bne :+
    lda score + 1
    cmp best + 1
    bne :+
    lda score
    cmp best
:   bcc :+
    lda score
    sta best
    lda score + 1
    sta best + 1
    lda score + 2
    sta best + 2
:   rts

; Whether the player is near the object at `other`: then the carry is clear.
near:
    ldy #x_of
    jsr near_by
    bcs :+
    ldy #y_of
    jsr near_by
:   rts
near_by:
    lda (hero), y
    sec
    sbc (other), y
    bcs :+
    eor #$FF
    adc #1
:   cmp #10
    rts

touch_coin:
    lda #<coin
    sta other
    lda #>coin
    sta other + 1
    jsr near
    bcc :+
    rts
:   inc coins
    inc total
    bne :+
    inc total + 1
:   lda combo
    cmp #9
    beq :+
    inc combo
:   lda #120
    sta combo_left
    ldy combo
    jsr add_tens
    jsr place_coin
    lda coins
    cmp #6
    bne :+
    lda #0
    sta coin + kind
    lda #3
    sta state
    lda #61
    sta wait_left
:   rts

touch_relic:
    lda relic + kind
    beq :+
    lda #<relic
    sta other
    lda #>relic
    sta other + 1
    jsr near
    bcs :+
    lda #0
    sta relic + kind
    ldx level
    lda bits, x
    ora relics
    sta relics
    ldy #5
    jsr add_tens
    lda relics
    cmp #$0F
    bne :+
    inc lives
:   rts

touch_enemies:
    lda safe_left
    bne touched
    lda #>enemies
    sta other + 1
    lda #$70
    sta other
:   ldy #kind
    lda (other), y
    beq :+
    jsr near
    bcs :+
    jmp hurt
:   lda other
    sec
    sbc #16
    sta other
    cmp #$40
    bcs :--
touched:
    rts

; Adds Y times ten to the score.
add_tens:
    lda score
    clc
    adc #$10
    sta score
    cmp #$A0
    bcc added
    sbc #$A0
    sta score
    lda score + 1
    jsr one_more
    sta score + 1
    bcc added
    lda score + 2
    jsr one_more
    sta score + 2
added:
    dey
    bne add_tens
    rts

; One more than the two decimal digits of A; the carry is set where they began anew.
one_more:
    clc
    adc #1
    pha
    and #$0F
    cmp #$0A
    pla
    bcc :+
    adc #5
:   cmp #$A0
    bcc :+
    lda #0
    sec
:   rts

; --- What is seen ---

; A sprite: y, tile, colours, x.
show:
    ldx #0
    lda state
    beq show_score
    ldy #y_of
    lda (hero), y
    sta sprites
    lda #1
    sta sprites + 1
    lda safe_left
    and #4
    sta sprites + 2
    ldy #x_of
    lda (hero), y
    sta sprites + 3
    ldy #4
:   lda enemies + kind, x
    beq :+
    lda enemies + y_of, x
    sta sprites, y
    lda enemies + kind, x
    sta sprites + 1, y
    lda enemies + x_of, x
    sta sprites + 3, y
    bne show_next
:   lda #$F8
    sta sprites, y
show_next:
    iny
    iny
    iny
    iny
    txa
    clc
    adc #16
    tax
    cpx #$60
    bne :--
show_score:
    ldx #2
    ldy #0
:   lda score, x
    lsr a
    lsr a
    lsr a
    lsr a
    jsr show_digit
    lda score, x
    and #$0F
    jsr show_digit
    dex
    bpl :-
    rts

show_digit:
    clc
    adc #5
    sta sprites + $41, y
    lda #16
    sta sprites + $40, y
    tya
    asl a
    adc #16
    sta sprites + $43, y
    iny
    iny
    iny
    iny
    rts

.segment "RODATA"
bits:
    .byte 0, 1, 2, 4, 8
begin_x:
    .byte 0, 40, 200, 60, 180
begin_y:
    .byte 0, 60, 150, 180, 90
begin_step:
    .byte 0, 1, $FF, 2, $FE
.include "pictures.s"

.segment "VECTORS"
    .addr nmi, reset, irq
