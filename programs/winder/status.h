/* The exit statuses, besides that of `fail`. */
#ifndef WINDER_STATUS_H
#define WINDER_STATUS_H

enum {
    STATUS_HELD = 0, /* also where the label was not reached */
    STATUS_PASSED = 1,
    STATUS_STOPPED = 130 /* and the label was not passed so far */
};

#endif
