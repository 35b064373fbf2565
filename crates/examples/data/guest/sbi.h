/* The SBI of the board, by name: each call, error and state of docs/SBI.md. C has the calls as functions; the numbers serve assembler
   too, where this file is included in a .S. */
#ifndef SBI_H
#define SBI_H

#ifdef __ASSEMBLER__
#define SBI_NUMBER(n) n
#else
#define SBI_NUMBER(n) n##ul
typedef unsigned long u64;
typedef unsigned int u32;
#endif

/* The board. */
#define RAM_BASE SBI_NUMBER(0x80000000)
#define PAGE_BYTES SBI_NUMBER(4096)
#define MOST_HARTS SBI_NUMBER(8)

/* Extensions (a7). */
#define SBI_BASE SBI_NUMBER(0x10)
#define SBI_HSM SBI_NUMBER(0x48534D)
#define SBI_IPI SBI_NUMBER(0x735049)
#define SBI_SRST SBI_NUMBER(0x53525354)
#define SBI_SUSP SBI_NUMBER(0x53555350)

/* Functions (a6) of Base, HSM, IPI, SRST and SUSP. */
#define SBI_BASE_SPEC_VERSION SBI_NUMBER(0)
#define SBI_BASE_IMPL_ID SBI_NUMBER(1)
#define SBI_BASE_IMPL_VERSION SBI_NUMBER(2)
#define SBI_BASE_PROBE_EXTENSION SBI_NUMBER(3)
#define SBI_BASE_MVENDORID SBI_NUMBER(4)
#define SBI_BASE_MARCHID SBI_NUMBER(5)
#define SBI_BASE_MIMPID SBI_NUMBER(6)
#define SBI_HSM_START SBI_NUMBER(0)
#define SBI_HSM_STOP SBI_NUMBER(1)
#define SBI_HSM_STATUS SBI_NUMBER(2)
#define SBI_HSM_SUSPEND SBI_NUMBER(3)
#define SBI_IPI_SEND SBI_NUMBER(0)
#define SBI_SRST_RESET SBI_NUMBER(0)
#define SBI_SUSP_SUSPEND SBI_NUMBER(0)

/* Errors (a0). */
#define SBI_SUCCESS 0
#define SBI_FAILED (-1)
#define SBI_NOT_SUPPORTED (-2)
#define SBI_INVALID_PARAM (-3)
#define SBI_DENIED (-4)
#define SBI_INVALID_ADDRESS (-5)
#define SBI_ALREADY_AVAILABLE (-6) /* of a start: the hart is not STOPPED */
#define SBI_ALREADY_STARTED (-7)
#define SBI_ALREADY_STOPPED (-8)

/* States of a hart. 3, 5 and 6 are never answered: those changes are one step each. */
#define SBI_STARTED SBI_NUMBER(0)
#define SBI_STOPPED SBI_NUMBER(1)
#define SBI_START_PENDING SBI_NUMBER(2)
#define SBI_SUSPENDED SBI_NUMBER(4)

/* Types of a hart's own suspend: it goes on after its call, or at an address as after a start. */
#define SBI_SUSPEND_RETENTIVE SBI_NUMBER(0)
#define SBI_SUSPEND_NON_RETENTIVE SBI_NUMBER(0x80000000)

/* Types and reasons of a reset. This board has no warm reboot. */
#define SBI_SHUTDOWN SBI_NUMBER(0)
#define SBI_COLD_REBOOT SBI_NUMBER(1)
#define SBI_WARM_REBOOT SBI_NUMBER(2)
#define SBI_NO_REASON SBI_NUMBER(0)
#define SBI_SYSTEM_FAILURE SBI_NUMBER(1)

/* Where the board sleeps. */
#define SBI_TO_RAM SBI_NUMBER(0)
#define SBI_TO_DISK SBI_NUMBER(0x80000001)

/* A mask's base that means all harts. */
#define SBI_ALL_HARTS (-SBI_NUMBER(1))

/* The software interrupt, in sie, sip and (with the top bit) scause; SIE of sstatus. */
#define SIE_SSIE 2
#define SIP_SSIP 2
#define SSTATUS_SIE 2
#define SSTATUS_SPIE 0x20
#define CAUSE_BREAKPOINT SBI_NUMBER(3)
#define CAUSE_SOFTWARE_INTERRUPT SBI_NUMBER(0x8000000000000001)

#ifndef __ASSEMBLER__

struct sbi_answer {
    long error;
    u64 value; /* 0 beside every error */
};

/* Registers other than a0 and a1 stay. Memory may change meanwhile: another hart runs, or the board sleeps. */
static inline struct sbi_answer sbi_call(u64 extension, u64 function, u64 x, u64 y, u64 z)
{
    register u64 a0 asm("a0") = x;
    register u64 a1 asm("a1") = y;
    register u64 a2 asm("a2") = z;
    register u64 a6 asm("a6") = function;
    register u64 a7 asm("a7") = extension;
    asm volatile("ecall" : "+r"(a0), "+r"(a1) : "r"(a2), "r"(a6), "r"(a7) : "memory");
    return (struct sbi_answer){(long)a0, a1};
}

static inline u64 sbi_get_spec_version(void)
{
    return sbi_call(SBI_BASE, SBI_BASE_SPEC_VERSION, 0, 0, 0).value;
}

static inline u64 sbi_get_impl_id(void)
{
    return sbi_call(SBI_BASE, SBI_BASE_IMPL_ID, 0, 0, 0).value;
}

static inline u64 sbi_get_impl_version(void)
{
    return sbi_call(SBI_BASE, SBI_BASE_IMPL_VERSION, 0, 0, 0).value;
}

static inline u64 sbi_probe_extension(u64 extension)
{
    return sbi_call(SBI_BASE, SBI_BASE_PROBE_EXTENSION, extension, 0, 0).value;
}

static inline u64 sbi_get_mvendorid(void)
{
    return sbi_call(SBI_BASE, SBI_BASE_MVENDORID, 0, 0, 0).value;
}

static inline u64 sbi_get_marchid(void)
{
    return sbi_call(SBI_BASE, SBI_BASE_MARCHID, 0, 0, 0).value;
}

static inline u64 sbi_get_mimpid(void)
{
    return sbi_call(SBI_BASE, SBI_BASE_MIMPID, 0, 0, 0).value;
}

/* The hart begins at the address, with its number in a0 and the opaque value in a1. */
static inline long sbi_hart_start(u64 hart, void (*address)(void), u64 opaque)
{
    return sbi_call(SBI_HSM, SBI_HSM_START, hart, (u64)address, opaque).error;
}

/* It does not return. */
static inline _Noreturn void sbi_hart_stop(void)
{
    sbi_call(SBI_HSM, SBI_HSM_STOP, 0, 0, 0);
    __builtin_unreachable();
}

/* A state, or SBI_INVALID_PARAM of a hart that the board has not. */
static inline struct sbi_answer sbi_hart_get_status(u64 hart)
{
    return sbi_call(SBI_HSM, SBI_HSM_STATUS, hart, 0, 0);
}

/* A retentive suspend returns once an interrupt is pending for the hart, whatever sie says, and leaves it pending. */
static inline long sbi_hart_suspend(u64 type, void (*address)(void), u64 opaque)
{
    return sbi_call(SBI_HSM, SBI_HSM_SUSPEND, type, (u64)address, opaque).error;
}

/* Bit K of the mask means hart `base` + K. */
static inline long sbi_send_ipi(u64 mask, u64 base)
{
    return sbi_call(SBI_IPI, SBI_IPI_SEND, mask, base, 0).error;
}

/* It returns only where it is refused. */
static inline long sbi_system_reset(u64 type, u64 reason)
{
    return sbi_call(SBI_SRST, SBI_SRST_RESET, type, reason, 0).error;
}

/* It returns only where it is refused; start.S has `board_suspend`, which returns once the board woke. */
static inline long sbi_system_suspend(u64 type, void (*address)(void), u64 opaque)
{
    return sbi_call(SBI_SUSP, SBI_SUSP_SUSPEND, type, (u64)address, opaque).error;
}

/* How many harts the board has: no call tells, but each answers its state. */
static inline u64 sbi_count_harts(void)
{
    u64 harts = 0;
    while (sbi_hart_get_status(harts).error == SBI_SUCCESS)
        harts++;
    return harts;
}

#endif
#endif
