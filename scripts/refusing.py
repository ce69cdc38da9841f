"""What refuses a program a request for memory: a library that stands before the C library's calls, built by the kit's own compiler."""
import os, subprocess, sys

sys.dont_write_bytecode = True
import kit

# The request whose number the environment names gets no memory, and how many there were goes to standard error, which our programs leave alone.
# (The C library's own names of its calls, so that nothing has to be looked up; the kit has none of its headers.)
SHIM = r"""
typedef unsigned long size_t;
int dprintf(int, const char *, ...);
char *getenv(const char *);
long strtol(const char *, char **, int);
void *__libc_malloc(size_t), *__libc_calloc(size_t, size_t), *__libc_realloc(void *, size_t), *__libc_memalign(size_t, size_t);

static long requests;

static int is_refused(void) {
    const char *number = getenv("REFUSED_REQUEST");
    return ++requests == (number ? strtol(number, 0, 10) : 0);
}

void *malloc(size_t size) { return is_refused() ? 0 : __libc_malloc(size); }

void *calloc(size_t count, size_t size) { return is_refused() ? 0 : __libc_calloc(count, size); }

void *realloc(void *old, size_t size) { return is_refused() ? 0 : __libc_realloc(old, size); }

void *aligned_alloc(size_t align, size_t size) { return is_refused() ? 0 : __libc_memalign(align, size); }

int posix_memalign(void **made, size_t align, size_t size) {
    void *found = is_refused() ? 0 : __libc_memalign(align, size);
    return found ? (*made = found, 0) : 12;
}

__attribute__((destructor)) static void tell(void) { dprintf(2, "requests %ld\n", requests); }
"""


def built(room):
    """Builds it in this folder, and returns its path."""
    source, shim = f"{room}/refusing.c", f"{room}/refusing.so"
    with open(source, "w", encoding="utf-8") as file:
        file.write(SHIM)
    compiler = f"{kit.load('refusing').rtlib.KIT}/toolchain/bin/clang"
    subprocess.run([compiler, "-shared", "-fPIC", "-O1", "-nostdlib", "-fuse-ld=lld", "-o", shim, source], check=True)
    return shim


def run(shim, words, number, text=b""):
    """Runs a program with the request of this number refused, none where it is 0: how it ended, and how many requests there were; None where it
    didn't come to tell."""
    how = {**os.environ, "LD_PRELOAD": shim, "REFUSED_REQUEST": str(number)}
    ran = subprocess.run(words, input=text, capture_output=True, env=how, timeout=60)
    told = ran.stderr.rpartition(b"requests ")[2].strip()
    return ran, int(told) if told.isdigit() else None
