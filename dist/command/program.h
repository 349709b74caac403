/* The numbers of the program's memory, the host's functions, and the program's that the host calls.
 * `make dist-sources` of the repository writes this file; do not edit it. */

#define TOP 1048576u
#define SIZE 1079098u

u32 host_fcntl(u32, u32, u64);
u32 host_rattle_errno(void);
void host_rattle_dealloc(u64);
u32 host_close(u32);
u32 host_fchown(u32, u32, u32);
u64 host_rattle_arg(u64, u64, u64);
void host_rattle_set_errno(u32);
u64 host_rattle_env_at(u64, u64, u64);
u64 host_rattle_env(u64, u64, u64);
void host_rattle_realloc(u64, u64, u64, u64, u64);
void host_rattle_alloc(u64, u64, u64);
void host___multi3(u64, u64, u64, u64, u64);
void host___lshrti3(u64, u64, u64, u32);
void host___ashlti3(u64, u64, u64, u32);
u32 host_pipe2(u64, u32);
u64 host_lseek(u32, u64, u32);
u32 host_open(u64, u32, u64);
u32 host_statx(u32, u64, u32, u32, u64);
u32 host_ftruncate(u32, u64);
u32 host_fchmod(u32, u32);
u32 host_fsync(u32);
u32 host_fdatasync(u32);
u32 host_flock(u32, u32);
u32 host_unlink(u64);
u64 host_write(u32, u64, u64);
u32 host_rename(u64, u64);
u64 host_read(u32, u64, u64);
u32 host_aes_available(void);
void host_aes_expand(u64, u64, u64, u64);
void host_aes_encrypt(u64, u64, u64);
void host_aes_decrypt(u64, u64, u64);
u32 host_clock_gettime(u32, u64);
u32 host___xpg_strerror_r(u32, u64, u64);
u64 host___sysv_signal(u32, u64);
u32 host_isatty(u32);
u32 module_main(u32, u64);
