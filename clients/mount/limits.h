/* The tree's limits (crates/ll_rights/src/limits.rt), and what the mount adds. */
#ifndef LIMITS_H
#define LIMITS_H

#define NODES_MOST 4096
#define NODES_WORD "4096"
#define ENTRIES_WORD "1000000"
#define DIRECTORY_MOST 1024
#define FILE_MOST 65536
#define PIECE_MOST 4096 /* of one read or write */
#define DESCRIPTORS_MOST 64
#define CLIENTS_MOST 64
#define NAME_MOST 255
#define PATH_MOST 4095
#define DEPTH_MOST 64

/* A name of 255 bytes of which each is spelled %XX, and its end. */
#define SPELLED_ROOM (3 * NAME_MOST + 1)
#define PATH_ROOM (PATH_MOST + 1)

/* Bytes of all files that the mount keeps itself. */
#define KEPT_MOST (1L << 30)

/* Seconds for the tree to begin: with many bytes, its first reply takes long; and for saving the history at its end. */
#define BEGINNING_SECONDS 300
#define SAVING_SECONDS 300

#endif
