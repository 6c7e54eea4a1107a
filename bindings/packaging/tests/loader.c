#include <dlfcn.h>

int main(int count, char **words) {
    void *library = dlopen(words[count - 1], RTLD_NOW);
    unsigned (*version)(void) = library ? (unsigned (*)(void))dlsym(library, "pulleynavy_version") : 0;
    return !version || !version();
}
