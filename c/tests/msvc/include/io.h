#pragma once
int _setmode(int file, int mode);
