# An image with the three commands, from the tarball that tools/release writes:
#
#     tools/release
#     docker build --tag crashfs .
#     docker run --rm --volume "$PWD:/work" crashfs crashfs-check store.trace -- ./check.sh
#
# strace needs the capability SYS_PTRACE to record in a container: docker run --cap-add SYS_PTRACE.
FROM debian:12-slim
ARG VERSION=0.2.0
RUN apt-get update \
    && apt-get install --no-install-recommends --yes python3 strace \
    && rm -rf /var/lib/apt/lists/*
COPY dist/crashfs-${VERSION}-linux-x86_64.tar.gz /tmp/crashfs.tar.gz
RUN tar --extract --gzip --file /tmp/crashfs.tar.gz --directory /usr/local --strip-components 1 \
        --no-same-owner \
    && rm /tmp/crashfs.tar.gz
WORKDIR /work
CMD ["crashfs-check", "--help"]
