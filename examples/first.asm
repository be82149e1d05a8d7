ldi 5
outa
hlt 0
