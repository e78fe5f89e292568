#pragma once
typedef struct { void *Ptr; } SRWLOCK;
__declspec(dllimport) void __stdcall InitializeSRWLock(SRWLOCK *lock);
__declspec(dllimport) void __stdcall AcquireSRWLockExclusive(SRWLOCK *lock);
__declspec(dllimport) void __stdcall ReleaseSRWLockExclusive(SRWLOCK *lock);
