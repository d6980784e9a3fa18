# The same with r11 is refused.
        .include "start.inc"
        start   main, %r11
