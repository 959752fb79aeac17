/*
 * untouched.c: reading an I/O buffer touches its header and none of its data. The message stands at the
 * end of a readable page, and its data of 2 MiB in pages that can't be read: a reader that looked at one
 * byte of them would be stopped by the system.
 */
#define _DEFAULT_SOURCE
#include "sudolog.h"

#include <stdio.h>
#include <string.h>
#include <sys/mman.h>
#include <unistd.h>

enum { LARGEST = 2097152 };

/* ttyout_buf with a delay of 1 s and as much data as a message of 2,097,152 bytes can hold. */
static const uint8_t header[] = { 0x3A, 0xFC, 0xFF, 0x7F, 0x0A, 0x02, 0x08, 0x01, 0x12, 0xF4, 0xFF, 0x7F };

int main(void)
{
    size_t page = (size_t)sysconf(_SC_PAGESIZE);
    size_t size = page + (size_t)LARGEST + page;
    uint8_t *pages = (uint8_t *)mmap(NULL, size, PROT_NONE, MAP_PRIVATE | MAP_ANONYMOUS, -1, 0);
    if (pages == MAP_FAILED || mprotect(pages, page, PROT_READ | PROT_WRITE) != 0) {
        perror("untouched");
        return 1;
    }
    uint8_t *message = pages + page - sizeof header;
    memcpy(message, header, sizeof header);

    struct sudolog_client_scan scan;
    struct sudolog_client_message whole;
    struct sudolog_io_buffer io;
    int passed = 0;
    passed += sudolog_scan_client(message, LARGEST, &scan) == 0 && scan.member == SUDOLOG_FROM_CLIENT_TTYOUT &&
              scan.content.offset == sizeof header && scan.content.length == LARGEST - sizeof header;
    passed += sudolog_read_client_message(message, LARGEST, &whole) == 0 && whole.content.offset == 4;
    passed += sudolog_read_io_buffer(message + 4, LARGEST - 4, &io) == 0 && io.delay.seconds == 1 &&
              io.data.length == LARGEST - sizeof header;
    printf("%d passed, %d failed\n", passed, 3 - passed);
    return passed == 3 ? 0 : 1;
}
