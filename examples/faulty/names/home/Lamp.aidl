package home;

import home.Room;

parcelable Lamp {
    Colour colour;
    int level;
    float level;
}
