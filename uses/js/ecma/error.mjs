// What a call could not do.

const MESSAGES = {
    NOT_LOADED: 'the module is not loaded: `await load()` first',
    BAD_TEXT: 'the text is neither a string nor a Uint8Array',
    NO_SLASH: 'a place of `slashes` is not that of a slash which is read as one',
    NOT_UTF8: 'the bytes are not UTF-8',
    TOO_LONG: 'the text has more than 4 GB',
    OUT_OF_MEMORY: 'there is no memory',
    BAD_OPTION: 'the library refuses the options',
    STOPPED: 'the module stopped',
};

/** What a call could not do. `code` is one of the names above. */
export class EcmaError extends Error {
    constructor(code, message = MESSAGES[code], more) {
        super(message, more);
        this.code = code;
    }

    get name() {
        return 'EcmaError';
    }
}
