/*
 * lwIP's options for lwip_end.c: PPP on a serial line without a system below it, and its statistics, which are on unless said otherwise.
 * All else is as lwIP has it, pools of buffers too; what is off here would need files that reading and writing frames does not.
 */
#define NO_SYS 1
#define SYS_LIGHTWEIGHT_PROT 0
#define LWIP_TCP 0
#define LWIP_NETCONN 0
#define LWIP_SOCKET 0
#define MEM_ALIGNMENT 8
#define MEM_LIBC_MALLOC 1
#define PPP_SUPPORT 1
#define PPPOS_SUPPORT 1
#define VJ_SUPPORT 0
