/*
 * The report that follows the lines of the frames: see report.h.
 */
#include "report.h"
#include "output.h"

static void add_number(u64 number)
{
    OUTPUT(" ");
    output_number(number);
}

/* The octets of a message, and the end of the line. */
static void add_octets(const u8 *octets, u32 len)
{
    output_need(2 * (size_t)len + 2);
    if (len) {
        OUTPUT(" ");
        output_digits(octets, len);
    }
    OUTPUT("\n");
}

static void report_sampling(const Port *port, u64 at)
{
    if (port->number == 0) {
        OUTPUT(" sampling empty\n");
        return;
    }
    OUTPUT(" sampling");
    add_number(port->number);
    add_number(port->time);
    add_number(port->len);
    u64 age = at < port->time ? 0 : at - port->time;
    if (age <= port->refresh)
        OUTPUT(" fresh");
    else
        OUTPUT(" stale");
    add_octets(port->newest, port->len);
}

static void report_queuing(const Port *port)
{
    OUTPUT(" queuing");
    add_number(port->queued);
    OUTPUT("\n");
    for (u32 i = 0; i < port->queued; i++) {
        const Message *message = &port->queue[i];
        output_need(192);
        OUTPUT("message ");
        output_raw(port->name, port->name_len);
        add_number(message->time);
        add_number(message->len);
        add_octets(message->octets, message->len);
    }
}

static void report_ports(const Link *link, u64 at)
{
    for (unsigned i = 0; i < link->ports_n; i++) {
        const Port *port = &link->ports[i];
        output_need(192);
        OUTPUT("port ");
        output_raw(port->name, port->name_len);
        if (port->sampling)
            report_sampling(port, at);
        else
            report_queuing(port);
    }
}

/* A network, counts from the first one on, and the end of the line. */
static void add_counts(int net, const u64 *counts, int end)
{
    output_raw(net ? " B" : " A", 2);
    for (int i = 1; i < end; i++)
        add_number(counts[i]);
    OUTPUT("\n");
}

void report(const Receiver *receiver, u64 at)
{
    for (size_t i = 0; i < receiver->links_n; i++)
        report_ports(&receiver->links[i], at);
    for (size_t i = 0; i < receiver->links_n; i++)
        for (int net = 0; net < 2; net++) {
            output_need(384);
            OUTPUT("count ");
            output_number(receiver->links[i].vl);
            add_counts(net, receiver->links[i].count[net], KINDS);
        }
    for (int net = 0; net < 2; net++) {
        output_need(192);
        OUTPUT("filtered");
        add_counts(net, receiver->filtered[net], FILTERS);
    }
}
