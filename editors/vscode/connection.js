// A connection with the language server: JSON-RPC 2.0 in frames, over the streams of a process.
'use strict'
const { spawn } = require('child_process')

/** The answer to a request that the server refuses. */
class Refused extends Error {}

class Connection {
    /** Starts the server. `heard` takes the messages that are no answers, `ended` is called once if the server ends. */
    constructor(command, words, folder, heard, ended) {
        this.number = 0
        this.waiting = new Map()
        this.left = Buffer.alloc(0)
        this.heard = heard
        this.process = spawn(command, words, { cwd: folder, stdio: ['pipe', 'pipe', 'inherit'] })
        this.process.stdout.on('data', data => this.take(data))
        this.process.stdin.on('error', () => {})
        const end = why => {
            for (const { fail } of this.waiting.values()) fail(new Refused(why))
            this.waiting.clear()
            if (!this.isEnded) ended(why)
            this.isEnded = true
        }
        this.process.on('error', error => end(error.message))
        this.process.on('exit', status => end(`the server ended with status ${status}`))
    }

    /** Takes bytes of the server's output, and the messages that are whole. */
    take(data) {
        this.left = Buffer.concat([this.left, data])
        for (;;) {
            const end = this.left.indexOf('\r\n\r\n')
            if (end < 0) return
            const length = +/content-length: *(\d+)/i.exec(this.left.toString('latin1', 0, end))[1]
            if (this.left.length < end + 4 + length) return
            const message = JSON.parse(this.left.toString('utf8', end + 4, end + 4 + length))
            this.left = this.left.subarray(end + 4 + length)
            this.message(message)
        }
    }

    message(message) {
        if (message.method) {
            const result = this.heard(message.method, message.params)
            if (message.id !== undefined) this.write({ id: message.id, result: result === undefined ? null : result })
            return
        }
        const found = this.waiting.get(message.id)
        this.waiting.delete(message.id)
        if (found && message.error) found.fail(new Refused(message.error.message))
        else if (found) found.done(message.result)
    }

    write(message) {
        if (this.isEnded) return
        const body = Buffer.from(JSON.stringify({ jsonrpc: '2.0', ...message }))
        this.process.stdin.write(`Content-Length: ${body.length}\r\n\r\n`)
        this.process.stdin.write(body)
    }

    notify(method, params) {
        this.write({ method, params })
    }

    /** The result of a request; it is cancelled if the editor does not want it any more. */
    ask(method, params, token) {
        const id = ++this.number
        if (this.isEnded) return Promise.reject(new Refused('the server has ended'))
        return new Promise((done, fail) => {
            this.waiting.set(id, { done, fail })
            this.write({ id, method, params })
            if (token) token.onCancellationRequested(() => this.notify('$/cancelRequest', { id }))
        })
    }

    /** Ends the session, and then the server. */
    async end() {
        await this.ask('shutdown').catch(() => {})
        this.notify('exit')
        this.isEnded = true
    }
}

module.exports = { Connection, Refused }
