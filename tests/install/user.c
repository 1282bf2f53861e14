/* Calls the library through the shared object alone. */
#include <stdint.h>
#include <stdio.h>

int shim_moved(const uint8_t *bytes, size_t length);

int main(void)
{
    const uint8_t mouse[15] = {0x20, 0x01, 0x02, 0x00, 0x00, 0x00, 0x08};

    printf("%d %d\n", shim_moved(mouse, sizeof mouse), shim_moved(mouse, 1));
    return 0;
}
