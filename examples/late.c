/* late: why a step ran late, from saved rings or live. All of it is in report_command.c. */
#include "commands.h"

int main(int argc, char **argv)
{
    return report_command(argc, argv);
}
