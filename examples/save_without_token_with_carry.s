# SAVEPREVSSP with the carry set, where the newest word is a return address: #GP. The carry is tested before the word.
_start: nop
        call f
        ud2
f:      stc
        saveprevssp
