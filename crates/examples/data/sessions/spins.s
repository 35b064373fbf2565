# It jumps to itself.
        j       .
