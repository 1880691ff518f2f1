#include <stdio.h>
#include <voldazpe_house.h>

int main(void) {
    voldazpe_house_t *house;              /* shares this process's processors */
    voldazpe_house_application_t service; /* wants one core at level 0 */
    voldazpe_house_thread_t *me;          /* this thread */
    int tasks = 1000;
    if (voldazpe_house_open(NULL, 0, NULL, &house) || voldazpe_house_join(house, "service", &service) ||
        voldazpe_house_want(house, service, 0, 1) || voldazpe_house_register(house, service, &me)) return 1;
    while (tasks > 0 && voldazpe_house_wait(me, -1) == VOLDAZPE_OK) /* sleeps until it has a core: pinned to it */
        while (tasks > 0 && voldazpe_house_keep(me)) tasks--;       /* one load per task; false: asked back */
    printf("the last task ran on core %d\n", voldazpe_house_core(me));
    return voldazpe_house_leave(me) || voldazpe_house_close(house);
}
