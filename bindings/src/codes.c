/* Names of codes, for messages. This file is plain C, and not proved. */
#include "mintlintel_durable.h"

const char *mintlintel_durable_code_name(uint32_t code)
{
    switch (code) {
    case MINTLINTEL_NO_ROOM: return "bad blocks have left no room";
    case MINTLINTEL_PAGES_LOST: return "pages have become unreadable, and older versions may stand for them";
    case MINTLINTEL_POWER_GONE: return "the power is gone";
    case MINTLINTEL_FAILED: return "the flash failed";
    case MINTLINTEL_OTHER_DEVICE: return "the flash holds another device";
    case MINTLINTEL_NO_NUMBER: return "the numbers have run out";
    case MINTLINTEL_OUT_OF_ORDER: return "out of order";
    case MINTLINTEL_UNREADABLE: return "the page can't be read";
    case MINTLINTEL_UNSETTLED: return "the sector's page was moved at each look";
    case MINTLINTEL_READ_PAGE: return "a page is to be read";
    case MINTLINTEL_NO_FILE: return "no such file, or it can't be made";
    case MINTLINTEL_IN_USE: return "the image is in use";
    case MINTLINTEL_NOT_AN_IMAGE: return "not an image, or its head is damaged";
    case MINTLINTEL_OTHER_VERSION: return "an image of another version";
    case MINTLINTEL_OTHER_NUMBERS: return "an image with other numbers";
    case MINTLINTEL_CUT_SHORT: return "the image is cut short";
    case MINTLINTEL_FILE_FAILED: return "the file failed";
    case MINTLINTEL_OTHER_PROCESS: return "another process has opened the image";
    case MINTLINTEL_BAD_MODE: return "no such mode";
    case MINTLINTEL_BAD_BLOCKS_LISTED: return "bad blocks are listed beside the image, which only a block device opens";
    default: return mintlintel_code_name(code);
    }
}
