# It stands at its first instruction, and writes nothing.
        j       .
