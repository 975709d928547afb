#!/bin/sh
# SQLite says whether the database is whole, and has each acknowledged row and at most the next one.
exec "${0%/*}/../../sqlite/recover.sh"
