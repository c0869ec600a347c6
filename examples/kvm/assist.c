/* EOI assist (TLFS, "EOI Assist"): most interrupts end without a write of EOI. The assist page is in the guest's memory; only
 * the thread of its processor uses it here, while the processor is not in the guest. */
#include "vmm.h"

enum { NO_EOI_REQUIRED = 1 };

/* After each exit. A guest that has cleared the bit has ended the vector in service. */
void assist_end(struct vp *vp)
{
    const uint32_t *word = hyperv_assist(vp);
    if (!vp->is_assisted || (word != NULL && (*word & NO_EOI_REQUIRED) != 0))
        return;
    vp->is_assisted = false;
    vp->ended_without++;
    board_write(vp, SYNICBOARD_MSR_EOI, 0);
}

/* Before each entry. Once another vector is requested, the guest has to write EOI. */
void assist_enter(struct vp *vp)
{
    uint32_t *word = hyperv_assist(vp);
    bool is_assisted = word != NULL && synicboard_no_eoi_required(board, vp->number);
    if (is_assisted)
        *word |= NO_EOI_REQUIRED;
    else
        assist_leave(vp);
    vp->is_assisted = is_assisted;
}

/* The guest has to write EOI. */
void assist_leave(struct vp *vp)
{
    uint32_t *word = hyperv_assist(vp);
    if (vp->is_assisted && word != NULL)
        *word &= ~(uint32_t)NO_EOI_REQUIRED;
    vp->is_assisted = false;
}
