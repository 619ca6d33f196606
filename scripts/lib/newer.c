/* A program for any processor and for newer ones in one file: which of both goes is looked at once.
 *
 * Both are made of the same crate (scripts/lib/newer), the one for x86-64-v2 and the other for
 * x86-64-v3, which has AVX2, BMI2 and FMA. */
int main_of_any(int count, char **words, char **environment);
int main_of_newer(int count, char **words, char **environment);

int main(int count, char **words, char **environment)
{
    __builtin_cpu_init();
    if (__builtin_cpu_supports("x86-64-v3"))
        return main_of_newer(count, words, environment);
    return main_of_any(count, words, environment);
}
