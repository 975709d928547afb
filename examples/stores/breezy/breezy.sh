# For the scripts beside it: Breezy without a user's files, and with the Python of Debian, of which
# it takes the first that PATH has.
PATH=/usr/bin:/bin
export PATH BRZ_EMAIL='me <me@example.com>' BRZ_HOME="${work:-/nonexistent}" BRZ_LOG=/dev/null
