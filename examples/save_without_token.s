# SAVEPREVSSP where no switch was made: the newest word is a return address, 0x401006. Its bit 1 is
# set, as in the word that a switch leaves, so it is taken for the pointer 0x401004, and the token
# would go to 0x400ff8. That is no shadow stack.
_start: nop
        call f
        ud2
f:      saveprevssp
