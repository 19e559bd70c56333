/* What numbers are called, for the programs that print them. */
#ifndef NAMES_H
#define NAMES_H

static const char *const types[] = {"audio", "video", "script"};
static const char *const kinds[] = {"LiveOnly", "VideoSequenceHeader", "AudioSequenceHeader",
                                    "VideoKeyframe"};
static const char *const hints[] = {"Critical", "ResyncPoint", "Droppable"};

#endif
