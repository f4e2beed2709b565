/* The configuration of the kernel that the driver is built for. */
#define CONFIG_ARM64 1
#define CONFIG_HAVE_ARM_SMCCC 1
#define CONFIG_MMU 1
#define CONFIG_SMP 1
#define CONFIG_TEE 1
#define CONFIG_OPTEE 1
