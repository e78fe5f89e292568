#pragma once
typedef unsigned long long size_t;
#define NULL ((void *)0)
