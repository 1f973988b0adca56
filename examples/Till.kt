package till

class Line(val article: String, val cents: Long, var count: Int = 1) {
    val total: Long get() = cents * count
    fun discounted(percent: Int = 10, rounded: Boolean = true): Long = total - total * percent / 100
}

class Sale(val number: Int, vararg lines: Line) {
    val lines: List<Line> = lines.toList()
    var customer: String? = null
        private set
    val codes: Array<Int> = arrayOf(number)
    val receipt: ByteArray get() = ByteArray(0)
    fun pay(cash: Long, card: Long? = null): Boolean = cash + (card ?: 0L) >= total()
    fun total(): Long = lines.map { it.total }.sum()
    fun names(known: Map<String, Array<String>>): Set<String> = known.keys
    fun void(): Nothing = throw IllegalStateException("void")
}

interface Journal {
    suspend fun store(sale: Sale, note: String = "")
    suspend fun find(number: Int): Sale?
}

enum class Reason { DAMAGED, UNWANTED }

data class Refund(val sale: Sale?, val cents: Long, val reason: Reason)

fun Sale.refund(cents: Long, reason: Reason = Reason.UNWANTED): Refund = Refund(this, cents, reason)

fun <T> Iterable<T>.cents(of: (T) -> Long): Long = map(of).sum()

val Sale.isEmpty: Boolean get() = lines.isEmpty()
