#!/bin/sh
# logged.sh LOG COMMAND [WORD..]: runs the command, and appends what it says on standard error to LOG. It is for those who give
# a program one connection as all three of its standard streams: what it says must not go to the other end of the line. So
# nothing is said there either where LOG can't be written: then the call is not answered, and the status is 2.
exec 2>/dev/null
exec 2>>"$1"
shift
exec "$@"
