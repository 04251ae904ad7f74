/* QEMU's mps2-an386: a Cortex-M4. */
MEMORY { FLASH (rx) : ORIGIN = 0, LENGTH = 4M  RAM (rw) : ORIGIN = 0x20000000, LENGTH = 4M }
INCLUDE sections.ld
