// Whole frames: that all sides decode alike, and how long they take.
#ifndef FRAMES_H
#define FRAMES_H

// Decodes many random frames on all sides; ends the program where they differ.
void check_frames(void);

// Prints the frames' lines of the table.
void time_frames(void);

#endif
