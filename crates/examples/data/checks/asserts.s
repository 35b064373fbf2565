# EBREAK, and no handler: stvec is 0 at a boot.
        ebreak
