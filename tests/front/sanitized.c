/* A fault that a sanitizer finds ends the front with a status that the front itself never has, also where there is no environment. Leaks
   are not looked for: the front lends itself static buffers, and on some machines the search takes seconds a call. */
const char *__asan_default_options(void);
const char *__ubsan_default_options(void);

const char *__asan_default_options(void)
{
    return "exitcode=99:detect_leaks=0:detect_stack_use_after_return=1";
}

const char *__ubsan_default_options(void)
{
    return "exitcode=99:print_stacktrace=1";
}
