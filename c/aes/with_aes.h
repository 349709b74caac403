/* Whether the compiler makes AES by the processor's instructions. */
#if defined(__aarch64__) && !defined(__AARCH64EB__) \
    && (defined(__linux__) || defined(__ARM_FEATURE_AES))
#define AARCH64_WITH_AES
#endif
#if (defined(__GNUC__) || defined(__clang__))                                                      \
    && (defined(__x86_64__) || defined(AARCH64_WITH_AES)) && !defined(KEYWRAP_NO_AES_INSTRUCTIONS) \
    && !defined(KEYWRAP_STEPS_ONLY)
#define WITH_AES
#endif
