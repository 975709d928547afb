# For the scripts beside it: Borg with a repository that is there, whatever its path, and no files of
# a user.
export BORG_BASE_DIR="$work" BORG_UNKNOWN_UNENCRYPTED_REPO_ACCESS_IS_OK=yes \
    BORG_RELOCATED_REPO_ACCESS_IS_OK=yes
