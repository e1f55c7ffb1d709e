# The library's functions, doing nothing: cost.c is linked with these to count what is not the library's.
    .text
    .globl pipettor_make, pipettor_byte, pipettor_listen, pipettor_tick, pipettor_advance, pipettor_run
    .globl pipettor_stop, pipettor_plunger, pipettor_exact, pipettor_ready, pipettor_error, pipettor_check
pipettor_make:
pipettor_byte:
pipettor_listen:
pipettor_tick:
pipettor_advance:
pipettor_run:
pipettor_stop:
pipettor_plunger:
pipettor_exact:
pipettor_ready:
pipettor_error:
pipettor_check:
    xorl %eax, %eax
    ret
    .section .note.GNU-stack, "", @progbits
