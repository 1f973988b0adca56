package till

import kotlin.reflect.KFunction1

// docs/MANUAL.md, "How to link": what the sheets say of these declarations, and which methods and fields they are.

@JvmName("refundAll")
fun refund(numbers: List<Int>): Int = numbers.size

@JvmName("refund")
fun refundSale(articles: List<String>): Int = articles.size

fun sum(cents: List<Long>): Long = cents.sum()

@JvmName("sumOfLines")
fun sum(lines: List<Line>): Long = lines.map { it.total }.sum()

fun each(sale: Sale, of: (Line) -> Unit): Unit = sale.lines.forEach(of)

fun count(coin: Drawer.Coin): Int = coin.cents

fun lines(sale: Sale): Iterator<Line> = sale.lines.iterator()

fun price(article: Map.Entry<String, Long>): Long = article.value

fun kept(copy: Cloneable): Boolean = copy is Array<*>

fun named(function: KFunction1<Sale, Refund>): String = function.name

fun Int.Companion.cents(): Int = 100

fun closed(): Unit? = null

inline class Cents(val count: Long)

fun paid(cents: Cents?): Boolean = cents != null

fun paid(sale: Sale, cents: Cents): Boolean = sale.total() == cents.count

const val CURRENCY: String = "EUR"

class Drawer {
    class Coin(@JvmField val cents: Int)

    internal fun open(): Boolean = true

    companion object {
        val opened: String by lazy { "now" }
    }
}

interface Stock {
    fun left(article: String): Int = find(article)
    private fun find(article: String): Int = article.length
}

annotation class Priced(val cents: Long)
