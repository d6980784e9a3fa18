# The same in a function of another name is refused.
        .include "start.inc"
        start   other, %rsi
