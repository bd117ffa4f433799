/* Debian's build makes this header: where the libraries of this machine would stand. */
#define DEB_HOST_MULTIARCH "riscv32"
