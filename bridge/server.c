/* A Modbus RTU server with ten registers, built on libmodbus, for `make live`. It prints each write
 * that it carries out, and at the end what its registers hold. */
#include <errno.h>
#include <modbus/modbus.h>
#include <signal.h>
#include <stdio.h>

static volatile sig_atomic_t stopping;

static void stop(int signal) { (void)signal; stopping = 1; }

int main(int count, char **words)
{
    struct sigaction action = {.sa_handler = stop};
    uint8_t request[MODBUS_RTU_MAX_ADU_LENGTH];
    modbus_t *line = count == 2 ? modbus_new_rtu(words[1], 9600, 'E', 8, 1) : NULL;
    modbus_mapping_t *held = modbus_mapping_new(0, 0, 10, 0);
    int i;
    if (!line || !held || modbus_set_slave(line, 1) || modbus_connect(line)
        || modbus_set_indication_timeout(line, 0, 200000)) return 1;
    sigaction(SIGTERM, &action, NULL), sigaction(SIGINT, &action, NULL);
    for (i = 0; i < 10; i++) held->tab_registers[i] = (uint16_t)(100 + i);
    while (!stopping) {
        int size = modbus_receive(line, request);
        if (size < 0 && (errno == EIO || errno == EBADF)) break;
        if (size <= 0) continue;
        if (request[1] != 3) printf("write %d %d\n", request[2] * 256 + request[3], request[4] * 256 + request[5]);
        else printf("read\n");
        modbus_reply(line, request, size, held);
        fflush(stdout);
    }
    for (i = 0; i < 10; i++) printf("%s%d", i ? " " : "registers ", held->tab_registers[i]);
    printf("\n");
    return 0;
}
