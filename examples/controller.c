/* controller: a controller's reading loop. All of it is in record_command.c. */
#include "commands.h"

int main(int argc, char **argv)
{
    return record_command(argc, argv);
}
