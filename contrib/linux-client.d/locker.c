/* locker NAME FILE MODE FIRST LENGTH: asks for a lock by fcntl, and tells on one line what came of it.
 *
 * MODE is w or r for a lock that is tried, W or R for one that is waited for, t for the lock in the way of a writer. A lock that
 * was got is kept until a signal ends the process. The line is `@ NAME ok`, `@ NAME again` (another one has it), `@ NAME free`,
 * `@ NAME held FIRST LENGTH PID`, or `@ NAME failed WHY`.
 */
#include <errno.h>
#include <fcntl.h>
#include <stdio.h>
#include <stdlib.h>
#include <string.h>
#include <unistd.h>

static int command_of(char mode)
{
	return mode == 't' ? F_GETLK : mode == 'W' || mode == 'R' ? F_SETLKW : F_SETLK;
}

static void tell(const char *name, int failure, const struct flock *lock, char mode)
{
	if (failure == EAGAIN || failure == EACCES)
		printf("@ %s again\n", name);
	else if (failure)
		printf("@ %s failed %s\n", name, strerror(failure));
	else if (mode != 't')
		printf("@ %s ok\n", name);
	else if (lock->l_type == F_UNLCK)
		printf("@ %s free\n", name);
	else
		printf("@ %s held %lld %lld %d\n", name, (long long)lock->l_start, (long long)lock->l_len, (int)lock->l_pid);
	fflush(stdout);
}

int main(int count, char **words)
{
	if (count != 6)
		return 2;
	char mode = words[3][0];
	struct flock lock = { .l_whence = SEEK_SET, .l_start = atoll(words[4]), .l_len = atoll(words[5]) };
	lock.l_type = mode == 'r' || mode == 'R' ? F_RDLCK : F_WRLCK;
	int file = open(words[2], O_RDWR | O_CREAT, 0666);
	int failure = file < 0 || fcntl(file, command_of(mode), &lock) != 0 ? errno : 0;
	tell(words[1], failure, &lock, mode);
	while (!failure && mode != 't')
		pause();
	return failure != 0;
}
