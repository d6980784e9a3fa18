# The toolchain's start of a program passes.
        .include "start.inc"
        start   main, %rsi
